# What a Makefile needs to link the library. Include it, compile with CYCLIC_CFLAGS, link CYCLIC_LIBS behind the program, and let this depend
# on CYCLIC_ARCHIVE, which is proved and built where it is not there:
#
#     include examples/embed/cyclic.mk
#     timer: timer.c $(CYCLIC_ARCHIVE)
#     	$(CC) $(CYCLIC_CFLAGS) $< $(CYCLIC_LIBS) -o $@
CYCLIC_TOP := $(realpath $(dir $(lastword $(MAKEFILE_LIST)))../..)
CYCLIC_KIT ?= $(patsubst %/,%,$(dir $(shell rt doc)))
CYCLIC_ARCHIVE := $(CYCLIC_TOP)/crates/cyclic_c/out/libcyclic_c.a
CYCLIC_CFLAGS := -I$(CYCLIC_TOP)/include
CYCLIC_LIBS := $(CYCLIC_ARCHIVE) $(CYCLIC_KIT)/c/liblibc_c.a

$(CYCLIC_ARCHIVE):
	cd $(CYCLIC_TOP)/crates/cyclic_c && rt lib
