"""A case in one running session, looked at and edited in browsers."""
