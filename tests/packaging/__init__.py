"""What machines without the toolchain get: archives, wheels and the header."""
