"""The programs in Python beside h2audit, and what they share: `report`."""
