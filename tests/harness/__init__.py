"""What the checks share: the loader, random scripts, a plain model of files, and reports."""
