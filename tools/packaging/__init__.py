"""The packages of dbp: an archive, a package of Debian, and an installation."""
