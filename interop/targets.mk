# Calls the static library of the image check from C and from Rust, and
# compares it with the rules. For the Makefile at the root to include.

RT ?= rt
RUSTC ?= rustc
PYTHON ?= python3

# rt uses all cores itself: one recipe at a time.
.NOTPARALLEL:
.PHONY: lib fuzz image-library

# Made anew each time, and so is what depends on it: only rt knows its sources.
# Recipes are chained by && so that no failure is passed over.
image-library:
	mkdir -p target/staticlib && (cd crates/image_c && $(RT) lib) && \
	cp crates/image_c/out/libimage_c.a target/staticlib/libimage.a

target/interop/check: image-library interop/check.c include/card_image.h
	mkdir -p target/interop && rm -f $@ && \
	$(CC) -O2 -Wall -Wextra -std=c11 -Iinclude interop/check.c \
	    target/staticlib/libimage.a -o $@

lib: target/interop/check
	sh interop/examples.sh target/interop/check && \
	if command -v $(RUSTC) >/dev/null 2>&1; then \
	    rm -f target/interop/check-rs && \
	    $(RUSTC) --edition 2024 -O interop/check.rs \
	        -L native=target/staticlib -l static=image \
	        -o target/interop/check-rs && \
	    sh interop/examples.sh target/interop/check-rs; \
	else \
	    echo "there is no rustc: the Rust program is skipped"; \
	fi

fuzz: target/interop/check
	$(PYTHON) -B tools/fuzz.py --check target/interop/check
