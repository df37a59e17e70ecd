# One saved file of many: halves are merged side by side, and then the two that come of them. However the files are
# grouped, the same file comes of it.
#
#     make -j4 -f examples/union/tree.mk OUT=year.saved PARTS="$(echo month-*.saved)"
ZMETA ?= zmeta
count := $(words $(PARTS))
half := $(shell echo $$(($(count) / 2)))
next := $(shell echo $$(($(half) + 1)))

ifeq ($(shell test $(count) -gt 3 && echo yes),yes)
$(OUT): $(OUT).left $(OUT).right
	$(ZMETA) join --quiet --save $@ $^ && rm $^
$(OUT).left:
	$(MAKE) -f $(firstword $(MAKEFILE_LIST)) OUT=$@ PARTS="$(wordlist 1,$(half),$(PARTS))"
$(OUT).right:
	$(MAKE) -f $(firstword $(MAKEFILE_LIST)) OUT=$@ PARTS="$(wordlist $(next),$(count),$(PARTS))"
else
$(OUT): $(PARTS)
	$(ZMETA) join --quiet --save $@ $^
endif
