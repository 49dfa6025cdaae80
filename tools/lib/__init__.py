"""What the tools share: reports, scripts, pictures and pages, by the standard library alone."""
