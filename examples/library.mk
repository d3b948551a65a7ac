# How the programs of the examples are built: $(OUT)/plain/NAME, $(OUT)/asan/NAME (AddressSanitizer and UndefinedBehaviorSanitizer) and
# $(OUT)/tsan/NAME (ThreadSanitizer, gcc's) of NAME.c or NAME.cpp, or of the files of PARTS_NAME. COMPILED_NAME and LINKED_NAME are added
# where they are set.
#
# The library is the proved archive. With FAKE=1 a fake of it takes its place, by which the examples are tried where the archive isn't
# there. What is built so goes into a folder of its own, out/fake.
TOP := $(abspath $(dir $(lastword $(MAKEFILE_LIST)))/..)
OUT := out$(if $(FAKE),/fake)
CXX = g++
WARNINGS = -Wall -Wextra
INCLUDED = $(wildcard $(TOP)/include/* $(TOP)/examples/*.h *.hpp *.cpp)
INCLUDES = -I$(TOP)/include -I$(TOP)/examples

FLAGS_plain = -O2 -g
FLAGS_asan = -O1 -g -fsanitize=address,undefined -fno-sanitize-recover=all
FLAGS_tsan = -O1 -g -fsanitize=thread

PROVED = $(TOP)/crates/shardcache_c/out/libshardcache_c.a
ARCHIVE = $(TOP)/out/libshardcache.a

$(ARCHIVE): $(PROVED)
	$(MAKE) -C $(TOP) out/libshardcache.a

$(PROVED):
	@echo "The proved archive isn't there, and is made now. With FAKE=1 the examples are built over a fake of it."
	$(MAKE) -C $(TOP) library

# Like the library, the fake is none into which ThreadSanitizer can look.
HOW_asan = asan
HOW_plain = plain
HOW_tsan = plain
FAKED = $(TOP)/examples/fake
fake = $(FAKED)/out/$(HOW_$(1))/libfake.a
library = $(if $(FAKE),$(call fake,$(1)),$(ARCHIVE))
# Behind the library, which C++ is no part of.
BEHIND = $(if $(FAKE),-lstdc++ -lm)

define built
$(FAKED)/out/$(1)/%.o: $(FAKED)/%.cpp $(FAKED)/rows.hpp $(TOP)/include/shardcache.h
	mkdir -p $$(@D)
	$$(CXX) -std=c++20 $$(WARNINGS) $$(FLAGS_$(1)) $$(INCLUDES) -c $$< -o $$@

$(FAKED)/out/$(1)/libfake.a: $(foreach part,rows blocks queues,$(FAKED)/out/$(1)/$(part).o)
	rm -f $$@
	$$(AR) rcs $$@ $$^

$(OUT)/$(1)/%: %.c $$(INCLUDED) $$(call library,$(1))
	mkdir -p $$(@D)
	$$(CC) -std=c11 $$(WARNINGS) $$(FLAGS_$(1)) $$(INCLUDES) $$< $$(call library,$(1)) $$(BEHIND) $$(LINKED_$$*) -o $$@

$(OUT)/$(1)/%: %.cpp $$(INCLUDED) $$(call library,$(1))
	mkdir -p $$(@D)
	$$(CXX) -std=c++20 $$(WARNINGS) $$(FLAGS_$(1)) $$(INCLUDES) -pthread $$(COMPILED_$$*) $$< $$(PARTS_$$*) $$(call library,$(1)) \
	$$(LINKED_$$*) -o $$@
endef
$(foreach how,plain asan tsan,$(eval $(call built,$(how))))
