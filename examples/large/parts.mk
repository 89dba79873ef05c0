# Edits the parts of a folder by make: what is done is not done again, unless its data, the image or the decks are newer.
#
# make -j 4 -f parts.mk CSBATCH=csbatch DICT=CENSUS.dcf IMAGE=CENSUS.img FOLDER=parts DECKS=begin.decks

MAKEFLAGS += --output-sync=target
HERE := $(dir $(lastword $(MAKEFILE_LIST)))

all: $(patsubst %.dat,%.out,$(wildcard $(FOLDER)/*.dat))

%.out: %.dat $(IMAGE) $(DECKS)
	$(HERE)run-part $(CSBATCH) $(DICT) $(IMAGE) $< $(DECKS)
