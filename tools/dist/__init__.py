"""What machines without the toolchain get: archives and wheels, all from one proved build."""
