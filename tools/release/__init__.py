"""What tools/make_release.py makes: the device built once, and the files that carry it to machines without the
toolchain."""
