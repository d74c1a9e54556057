# Says in a document that is installed, with sed -E, of each path that isn't installed that it is one of the repository.
s#`((bench|crates|install|out|tests|tools)/[^`]*|release/(make[^`]*)?|crates\.txt|CONTRIBUTING\.md|docs/((ARCHITECTURE|COSTS|PROOFS|TRAPS)\.md|make|(notes|claims)\.txt))`#& (in the repository)#g
s#(`tests/(checker|map_checker|witness_checker)\.py[^`]*`) \(in the repository\)#\1#g
s#(`crates/[A-Za-z_]+/README\.md`) \(in the repository\)#\1#g
