"""Runs a command of the tools within the tests, and gives its status and what it writes."""
import contextlib
import io

from ltm_tools import cli


def run(*words: str) -> tuple[int, str, str]:
    """The status, the output and the error output of `ltm-tools WORDS ..`."""
    out, err = (io.TextIOWrapper(io.BytesIO(), encoding="utf-8", write_through=True) for _ in range(2))
    with contextlib.redirect_stdout(out), contextlib.redirect_stderr(err):
        try:
            status = cli.main(words)
        except SystemExit as end:
            status = int(end.code or 0)
    return status, *(stream.buffer.getvalue().decode() for stream in (out, err))  # type: ignore[attr-defined]
