# How the command is installed and packed. Everything is made below packaging/out first.
#
#   make install PREFIX=/usr/local DESTDIR=      bin/sefgulaw, bin/sefgulaw-loader, lib/sefgulaw, man pages, completions
#   make uninstall PREFIX=/usr/local DESTDIR=    takes the same away
#   make dist                                    a tar file that runs where it is unpacked, and a wheel
#   make deb                                     two Debian packages

PREFIX ?= /usr/local
DESTDIR ?=

.PHONY: install uninstall dist deb

install: has-loader  ## puts the command below PREFIX, with DESTDIR before it (seconds)
	@tools/install-packages install
	@packaging/stage install '$(LOADER)' '$(PREFIX)' '$(DESTDIR)'

uninstall:  ## takes it away again (seconds)
	@packaging/stage uninstall '$(PREFIX)' '$(DESTDIR)'

dist: has-loader  ## makes a tar file that runs where it is unpacked, and a wheel (seconds)
	@tools/install-packages install packages
	@packaging/stage dist '$(LOADER)'

deb: has-loader  ## makes two Debian packages (minutes)
	@tools/install-packages install packages
	@packaging/stage deb '$(LOADER)'
