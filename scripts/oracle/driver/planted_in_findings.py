"""Wrong readings of `--all`."""
import all_findings
from trying import Reading

OF_FINDINGS = [
    Reading('the search goes on behind an unsafe moment', all_findings, 'ends_at', lambda old: lambda world: False),
    Reading('the search ends at the first finding', all_findings, 'is_over', lambda old: bool),
]
