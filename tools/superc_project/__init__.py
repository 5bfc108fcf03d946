"""Makes runs of superc from the build of a project."""
