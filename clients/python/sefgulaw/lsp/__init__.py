"""A server of the Language Server Protocol, which is a front end of the daemon."""
