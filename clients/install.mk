# Installs the program, its page and completions, the clients and the documents:
#
#     make -C clients install [PREFIX=/usr/local] [DESTDIR=]
#
# The program has to be there: `./pps --version` at the top builds it. `uninstall` removes what `install` puts there.
PREFIX ?= /usr/local
DESTDIR ?=
PROGRAM ?= ../crates/pps_cli/out/pps_cli
INSTALL ?= install

TO = $(DESTDIR)$(PREFIX)
DOCUMENTS = README.md ../LICENSE ../docs/BEHAVIOUR.md ../docs/FORMATS.md

# What is installed: programs, plain files, each as FROM:TO below the prefix.
INSTALLED_PROGRAMS = $(PROGRAM):bin/pps \
	$(OUT)/ppsd:bin/ppsd $(OUT)/pps-cat:bin/pps-cat $(OUT)/pps-set:bin/pps-set $(OUT)/pps-watch:bin/pps-watch \
	pps-mqtt:bin/pps-mqtt
INSTALLED_FILES = c/pps.h:include/pps.h $(OUT)/libpps.a:lib/libpps.a python/pps.py:lib/pps/pps.py \
	../docs/pps.1:share/man/man1/pps.1 \
	completions/pps.bash:share/bash-completion/completions/pps \
	completions/_pps:share/zsh/site-functions/_pps \
	completions/pps.fish:share/fish/vendor_completions.d/pps.fish \
	service/container-init:share/doc/pps/service/container-init \
	service/Containerfile:share/doc/pps/service/Containerfile \
	$(foreach document,$(DOCUMENTS),$(document):share/doc/pps/$(notdir $(document)))
UNIT = lib/systemd/system/ppsd.service

install: all
	@test -x $(PROGRAM) || { echo "install: $(PROGRAM) is missing: run ../pps --version to build it" >&2; exit 1; }
	@set -e; for pair in $(INSTALLED_PROGRAMS); do \
		$(INSTALL) -D -m 755 "$${pair%%:*}" "$(TO)/$${pair#*:}"; done
	@set -e; for pair in $(INSTALLED_FILES); do \
		$(INSTALL) -D -m 644 "$${pair%%:*}" "$(TO)/$${pair#*:}"; done
	@chmod 755 "$(TO)/share/doc/pps/service/container-init"
	@mkdir -p "$(dir $(TO)/$(UNIT))"
	@sed 's|@PREFIX@|$(PREFIX)|g' service/ppsd.service.in > "$(TO)/$(UNIT)"
	@echo "install: all is below $(TO)"

uninstall:
	@rm -f $(foreach pair,$(INSTALLED_PROGRAMS) $(INSTALLED_FILES),"$(TO)/$(lastword $(subst :, ,$(pair)))") "$(TO)/$(UNIT)"
	@-rmdir "$(TO)/share/doc/pps/service" "$(TO)/share/doc/pps" "$(TO)/lib/pps" 2>/dev/null

.PHONY: install uninstall
