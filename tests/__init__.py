"""What the gate runs beside the proofs: programs and archive compared with the reference."""

from pathlib import Path

ROOT = Path(__file__).resolve().parent.parent
