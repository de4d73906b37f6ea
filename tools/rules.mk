# The file tool, the example of batches, and their tests.
.PHONY: install-tool check-tool check-batches check-proved

# ---- The file tool

# It is built for the level that CPU names, or for both in one program, if both run here.
TOOL = $(OUT)/$(or $(CPU),$(if $(filter 2,$(words $(RUNNABLE))),both,$(RUNNABLE)))/hunkravy
TOOL_PAGES = crates/hunkravy/manual

# The levels are built in one folder, so one after the other.
$(OUT)/x86-64-v3/hunkravy.o: | $(if $(filter %-v3,$(CPU)),,$(OUT)/x86-64-v2/hunkravy.o)

$(OUT)/%/hunkravy.o: $(call sources,hunkravy) crates.txt
	mkdir -p $(@D)
	$(call build,hunkravy,--cpu=$*,rt run --cpu=$* -- --help > /dev/null,out/hunkravy.o)

$(OUT)/%/hunkravy: $(OUT)/%/hunkravy.o
	python3 tools/proved.py link $@ $<

# The `main` of each build gets a name of its own, and that of dist/start.c calls the one for the processor's level.
START_FLAGS = -std=c99 -Wall -Wextra -Wpedantic -Werror -O2 -fPIE -fstack-protector-strong -fcf-protection \
	-DKIT="\"$$(rt version)\""

$(OUT)/both/hunkravy: $(LEVELS:%=$(OUT)/%/hunkravy.o) dist/start.c c/levels/level.h tools/rules.mk
	mkdir -p $(@D)
	for level in v2 v3; do \
		objcopy --redefine-sym main=main_$$level $(OUT)/x86-64-$$level/hunkravy.o $(@D)/main_$$level.o || exit 1; \
	done
	$(CC) $(START_FLAGS) -c dist/start.c -o $(@D)/start.o
	python3 tools/proved.py link $@ $(@D)/start.o $(@D)/main_v2.o $(@D)/main_v3.o

# Installs the program hunkravy, its manual page, the example of a backup, and completions for shells.
ZSH_COMPLETIONS = $(PREFIX)/share/zsh/site-functions

install-tool: $(TOOL)
	install -D -m 755 $(TOOL) "$(DESTDIR)$(PREFIX)/bin/hunkravy"
	echo 'hunkravy is built for $(notdir $(patsubst %/,%,$(dir $(TOOL))))'
	install -D -m 644 $(TOOL_PAGES)/man "$(DESTDIR)$(PREFIX)/share/man/man1/hunkravy.1"
	install -D -m 644 dist/examples/backup.sh "$(DESTDIR)$(EXAMPLES_FOLDER)/backup.sh"
	install -D -m 644 $(TOOL_PAGES)/bash "$(DESTDIR)$(PREFIX)/share/bash-completion/completions/hunkravy"
	install -D -m 644 $(TOOL_PAGES)/zsh "$(DESTDIR)$(ZSH_COMPLETIONS)/_hunkravy"
	install -D -m 644 $(TOOL_PAGES)/fish "$(DESTDIR)$(PREFIX)/share/fish/vendor_completions.d/hunkravy.fish"

# The tests of the program that need files, links, pipes, terminals, full devices, calls that fail and kills, which no proof
# covers: a minute or two, and 300 MB of disk. Each file of them is a scene, and several run side by side.
SCENES = $(notdir $(basename $(wildcard tools/scenes/test_*.py)))

check-tool: $(TOOL)
	$(CC) -shared -fPIC -O1 tools/scenes/system_calls.c -o $(OUT)/system_calls.so
	$(MAKE) --no-print-directory --output-sync --jobs=$(or $(RT_JOBS),$(CHECKS)) $(SCENES:%=check-tool-%)

check-tool-%:
	cd tools/scenes && TOOL="$(CURDIR)/$(TOOL)" CALLS_LIBRARY="$(CURDIR)/$(OUT)/system_calls.so" \
		VERSION=$(VERSION) SHELL=/bin/sh python3 -B scene.py $*

# ---- Batches of writes

# Kills a program that writes to sealed pages in batches, at 200 moments.
BATCHES = crates/example_batches/out/example_batches

check-batches: $(BATCHES)
	tools/check_batches.sh $<

$(BATCHES): $(call sources,example_batches)
	cd crates/example_batches && rt run > /dev/null

# That nothing is built over what the gate has not proved.
check-proved:
	tools/check_proved.sh
