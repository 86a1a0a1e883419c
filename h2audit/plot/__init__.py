"""h2audit-plot: draws the credit of the windows in a report of h2audit."""
