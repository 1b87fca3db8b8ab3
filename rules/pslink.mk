# A rule for GNU make: one link makes NAME.linked of NAME.code, and NAME.map, the map of that link. Of the other prerequisites
# those that end with .code are the libraries, in their order, and so are those that PSLINK_LIBS names, by their names or by
# patterns. Any others, as a Makefile, are no libraries. Give the two files the same prerequisites:
#
#     include pslink.mk
#     PSLINK_LIBS = system.library
#     demo.linked demo.map: myunits.code system.library Makefile
#
# PSLINK is the program: ../bin/pslink beside this file, or else the one on the path.
pslink_beside := $(wildcard $(dir $(lastword $(MAKEFILE_LIST)))../bin/pslink)
PSLINK ?= $(or $(pslink_beside),pslink)
pslink_libraries = $(filter %.code $(PSLINK_LIBS),$(filter-out $<,$^))

%.linked %.map: %.code
	$(PSLINK) link -o $*.linked.new --map $*.map.new $< $(pslink_libraries) && mv $*.map.new $*.map && mv $*.linked.new $*.linked \
	    || { status=$$?; rm -f $*.linked.new $*.map.new; exit $$status; }
