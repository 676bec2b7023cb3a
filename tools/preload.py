"""Libraries of a few lines of C that the loader puts before the C library, so that a call of a program fails or is counted."""
import os
import subprocess

TOOLS = os.path.dirname(os.path.abspath(__file__))


def preloaded(source: str, folder: str, *options: str) -> str:
    """Compiles such a source, by its path below tools/, into a folder, and returns the path of the library."""
    library = os.path.join(folder, os.path.basename(source)[: -len(".c")] + ".so")
    words = ["cc", "-O1", *options, "-shared", "-fPIC", "-o", library, os.path.join(TOOLS, source)]
    subprocess.run(words, check=True)
    return library
