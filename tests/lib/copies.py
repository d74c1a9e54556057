"""Copies of files of the repository that a test may change, also where the repository is read-only."""
import pathlib
import shutil
import stat


def copy(source, target, **how):
    """Copies a file, or a folder with what is in it; who made the copy may write it."""
    source = pathlib.Path(source)
    copied = pathlib.Path(shutil.copytree(source, target, dirs_exist_ok=True, **how) if source.is_dir() else shutil.copy(source, target))
    for path in (copied, *copied.rglob('*')):
        path.chmod(path.stat().st_mode | stat.S_IWUSR)
