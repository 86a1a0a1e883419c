"""What measures, and what it measures with: `python3 -m bench.NAME`, from the top of the repository."""
