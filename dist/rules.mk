# What is released.
.PHONY: dist check-dist sign

# Writes the archives, the packages and their sums to out/dist. If the tools for ARM are there, its archive too, and
# with musl-gcc the wheel for musl.
dist: $(OUT)/both/libhunkravy.a $(OUT)/both/$(SONAME) $(OUT)/both/hunkravy $(SDIST) $(WHEEL) \
		$(if $(shell command -v musl-gcc),$(WHEEL_musl)) \
		$(if $(shell command -v aarch64-linux-gnu-gcc),$(OUT)/aarch64/libhunkravy.a $(OUT)/aarch64/$(SONAME) $(WHEEL_aarch64))
	tools/pack.sh $(VERSION) $(OUT)

# Packs the same builds once more, in a copy of the repository in another folder, which has to give the same bytes; compares
# what was packed with what a package has to have; and uses what was unpacked in an empty folder, with no kit.
check-dist: dist
	tools/check_dist.sh $(VERSION) $(OUT)

# Signs the sums of what was packed, by the private key in the file KEY.
sign:
	ssh-keygen -y -f "$(KEY)" | sed 's/^/hunkravy /' > $(OUT)/dist/signers
	rm -f $(OUT)/dist/SHA256SUMS.sig
	ssh-keygen -q -Y sign -f "$(KEY)" -n hunkravy $(OUT)/dist/SHA256SUMS
