/* A plain simulator, bit by bit: the sequences of a stimulus one after another, over an ASCII AIGER file whose gates stand in
   order, with outputs alone and no free latch. It prints the trace as `fretime sim` does. */
#include <stdio.h>
#include <stdlib.h>

static unsigned inputs, latches, outputs, gates;
static unsigned *current, *next, *reset, *output, *lhs, *left, *right;
static unsigned char *value;

static unsigned bit(unsigned lit) { return value[lit >> 1] ^ (lit & 1); }

static unsigned *room(unsigned count) { return malloc((count + 1) * sizeof(unsigned)); }

static void read_circuit(const char *path) {
    char line[256];
    unsigned most, k, lit;
    FILE *file = fopen(path, "r");
    if (!file || !fgets(line, sizeof line, file)) exit(3);
    if (sscanf(line, "aag %u %u %u %u %u", &most, &inputs, &latches, &outputs, &gates) != 5) exit(1);
    value = calloc(most + 1, 1);
    current = room(latches), next = room(latches), reset = room(latches), output = room(outputs);
    lhs = room(gates), left = room(gates), right = room(gates);
    for (k = 0; k < inputs; k++)
        if (!fgets(line, sizeof line, file) || sscanf(line, "%u", &lit) != 1 || lit != 2 * (k + 1)) exit(1);
    for (k = 0; k < latches; k++) {
        reset[k] = 0;
        if (!fgets(line, sizeof line, file) || sscanf(line, "%u %u %u", &current[k], &next[k], &reset[k]) < 2) exit(1);
    }
    for (k = 0; k < outputs; k++)
        if (!fgets(line, sizeof line, file) || sscanf(line, "%u", &output[k]) != 1) exit(1);
    for (k = 0; k < gates; k++)
        if (!fgets(line, sizeof line, file) || sscanf(line, "%u %u %u", &lhs[k], &left[k], &right[k]) != 3) exit(1);
    fclose(file);
}

static void step(const char *digits, unsigned char *state) {
    unsigned k;
    for (k = 0; k < inputs; k++) value[k + 1] = digits[k] == '1';
    for (k = 0; k < latches; k++) value[current[k] >> 1] = state[k];
    for (k = 0; k < gates; k++) value[lhs[k] >> 1] = bit(left[k]) & bit(right[k]);
    putchar(':');
    for (k = 0; k < outputs; k++) putchar('0' + bit(output[k]));
    putchar('\n');
    for (k = 0; k < latches; k++) state[k] = bit(next[k]);
}

int main(int count, char **words) {
    if (count != 3) return 2;
    read_circuit(words[1]);
    unsigned k;
    size_t length = inputs + 16;
    char *line = malloc(length);
    unsigned char *state = malloc(latches + 1);
    FILE *file = fopen(words[2], "r");
    if (!file) return 3;
    while (fgets(line, length, file)) {
        if (line[0] == '=') {
            puts("=");
            for (k = 0; k < latches; k++) state[k] = reset[k] == 1;
        } else {
            step(line + 1, state);
        }
    }
    return 0;
}
