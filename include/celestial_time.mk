# For a program in C that calls the port. Include this file in a Makefile, compile with CT_CFLAGS, link with CT_LIBS and let
# the program depend on CT_LIBS, which are built where they are missing or older than the port's sources:
#
#     include celestial-time/include/celestial_time.mk
#     viewer: viewer.c $(CT_LIBS)
#     	$(CC) $(CFLAGS) $(CT_CFLAGS) -o $@ viewer.c $(CT_LIBS)
#
# Do not link with -ffast-math or -Ofast: the header says why. The path of the port's folder has no blank, which make would take
# for the end of a name.
CT_ROOT := $(abspath $(dir $(lastword $(MAKEFILE_LIST)))/..)
ifneq ($(words $(CT_ROOT)),1)
$(error celestial_time.mk: there is a blank in the path of the port's folder, $(CT_ROOT))
endif
CT_CFLAGS := -I$(CT_ROOT)/include
CT_LIBS := $(CT_ROOT)/target/staticlib/libcapi.a

$(CT_LIBS): $(wildcard $(CT_ROOT)/crates/*/src/*.rt $(CT_ROOT)/crates/*/src/*/*.rt)
	$(CT_ROOT)/tools/staticlib capi
	touch $@

# The library is not what a Makefile that includes this one makes by default.
ifeq ($(.DEFAULT_GOAL),$(CT_LIBS))
.DEFAULT_GOAL :=
endif
