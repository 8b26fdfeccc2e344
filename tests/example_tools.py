"""Runs of the tools of examples/, in this process, so that no time goes into starting Python."""
import contextlib
import importlib.util
import io
import sys
import unittest.mock

from support import EXAMPLES, Ended

sys.path.append(str(EXAMPLES))


def run_tool(name, *arguments):
    """What became of a run of this tool."""
    spec = importlib.util.spec_from_file_location("tool", EXAMPLES / name)
    tool = importlib.util.module_from_spec(spec)
    spec.loader.exec_module(tool)
    output, errors = io.StringIO(), io.StringIO()
    words = [name, *map(str, arguments)]
    with unittest.mock.patch.object(sys, "argv", words), contextlib.redirect_stderr(errors):
        with contextlib.redirect_stdout(output):
            try:
                status = tool.main()
            except SystemExit as end:
                status = end.code
    return Ended(status, output.getvalue().encode(), errors.getvalue())
