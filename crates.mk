# Proves a crate of this repository, TOP, and before it those that it stands on, side by side where crates.txt lets:
# make -j 2 -f crates.mk TOP=ps_linker LAST='rt run -- --version'
# A rule for each crate, made from its line of crates.txt, runs `rt lib` in its folder, and for TOP the command LAST. A line says which
# crate is done and after how many seconds. What rt prints is in crates/NAME/out/log.
TOP ?= ps_linker
LAST ?= rt lib
MAKEFLAGS += --no-builtin-rules
comma := ,
blank := $() $()
# crates.txt, a word for each line: NAME:DEP,DEP..
LINES := $(shell sed -e 's/\#.*//' -e 's/ staticlib//' -e 's/ *: */:/' -e 's/  */,/g' -e '/:/!d' crates.txt)
NAMES := $(foreach line,$(LINES),$(firstword $(subst :,$(blank),$(line))))
# the crates of this repository that a crate's line names; some crates and those of their lines; and all that some stand on
below = $(filter $(NAMES),$(subst $(comma),$(blank),$(patsubst $(1):%,%,$(filter $(1):%,$(LINES)))))
with_below = $(sort $(1) $(foreach crate,$(1),$(call below,$(crate))))
closure = $(if $(filter-out $(1),$(with_below)),$(call closure,$(with_below)),$(1))
NEEDED := $(call closure,$(TOP))
DONE := crates/$(TOP)/out/done

.PHONY: all start $(NEEDED)

all: $(TOP)

start:
	@rm -rf $(DONE) && mkdir -p $(DONE)

# (to make a folder is to take a number: two crates that are done at once get two)
define rule
$(1): start $(call below,$(1))
	@mkdir -p crates/$(1)/out; begun=$$$$(date +%s); \
	if ! (cd crates/$(1) && $(if $(filter $(TOP),$(1)),$(LAST),rt lib)) >crates/$(1)/out/log 2>&1; then \
	    tail -n 20 crates/$(1)/out/log; echo '$(1) is not proved: see crates/$(1)/out/log'; exit 1; \
	fi; \
	n=1; until mkdir $(DONE)/$$$$n 2>/dev/null; do n=$$$$((n + 1)); done; \
	echo "$$$$n of $(words $(NEEDED)) proved: $(1), in $$$$(($$$$(date +%s) - begun)) seconds"
endef
$(foreach crate,$(NEEDED),$(eval $(call rule,$(crate))))
