"""Computes reports from the text of the definitions. To judge it, read these modules in this order.

The interpreter: `reading` makes terms of a file's text, `values` says what values are, `evaluating` what the terms
mean, and `words` what each word of the standard prelude means. What shows a claim: `claims`, and `ranges` where it
speaks of all numbers. `running` says what is asked of the definitions, and prints what they answer. None of these
knows a rule of pcap, TCP or HTTP/2. `search` does, and proposes witnesses; it need not be right, since a claim that
they do not bear out is not shown.
"""
