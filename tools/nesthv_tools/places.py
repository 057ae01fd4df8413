"""Where the tools are, and what they are called: in a repository, or where tools/install has put them."""
import os
import sys

PACKAGE = os.path.dirname(os.path.realpath(__file__))
TOOLS = os.path.dirname(PACKAGE)
TOP = os.path.dirname(TOOLS)
DIST = os.path.join(TOP, "dist")
IS_REPOSITORY = os.path.isdir(os.path.join(TOP, "examples"))
DOCUMENTS = os.path.join("share", "doc", "nesthv")  # below the prefix, where a package has put them
EXAMPLES = os.path.join(TOP, "examples") if IS_REPOSITORY else \
    os.path.normpath(os.path.join(TOP, "..", "..", DOCUMENTS, "examples"))


def name() -> str:
    """What the lines of the tool that runs begin with."""
    folder, tool = os.path.split(os.path.abspath(sys.argv[0]))
    return f"{os.path.basename(folder)}/{tool}" if IS_REPOSITORY else tool


def sibling(tool: str) -> str:
    """What another tool is called."""
    return f"tools/{tool}" if IS_REPOSITORY else f"nesthv-{tool}"
