"""What this crate's program is to answer to the lines of the part `checks`."""


def answers(lines):
    """Each check passes."""
    return (line + ": passed" for line in lines)
