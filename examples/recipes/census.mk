# From logic to edited data by make: each file is made again where what it is made from is newer.
#
# make -f census.mk CSBATCH=csbatch DICT=CENSUS.dcf LOGIC=CENSUS.apc MESSAGES=CENSUS.mgf ORDER=CENSUS.order DATA=CENSUS.dat
#
# An output has a temporary name until it is whole. CENSUS.out comes last, so it tells that the others are there.

BASE := $(DATA:.dat=)

$(BASE).out: $(DATA) $(BASE).verified
	$(CSBATCH) run $(DICT) $(BASE).img $< $@.tmp $(BASE).lst.tmp $(BASE).frq.tmp
	mv $(BASE).lst.tmp $(BASE).lst
	mv $(BASE).frq.tmp $(BASE).frq
	mv $@.tmp $@

$(BASE).verified: $(DICT) $(BASE).img
	$(CSBATCH) verify $(DICT) $(BASE).img > $@.tmp
	mv $@.tmp $@

$(BASE).img: $(DICT) $(LOGIC) $(MESSAGES) $(ORDER)
	$(CSBATCH) compile $(DICT) $(LOGIC) $@.tmp $(MESSAGES:%=--messages %) $(ORDER:%=--order %)
	mv $@.tmp $@
