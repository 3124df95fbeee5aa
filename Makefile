# Installs dbp below PREFIX, or makes its packages in OUT. The program is proved first if it isn't: that takes half an hour.
# PACKAGE_OPTIONS is for `--gate FILE` and `--program PROGRAM`; `tools/package --help` says more.

PREFIX = /usr/local
OUT = out
PACKAGE_OPTIONS =

install:
	tools/package --install "$(DESTDIR)$(PREFIX)" $(PACKAGE_OPTIONS)

uninstall:
	tools/package --uninstall "$(DESTDIR)$(PREFIX)"

package:
	tools/package -o "$(OUT)" $(PACKAGE_OPTIONS)

.PHONY: install uninstall package
