"""A campaign: logs of many runs, judged by `wmlab stream` in batches on the workers of a Dask cluster.

`command_line` has the usage, `plan` what the words ask for, `program` finds wmlab, `batches` cuts the work, `cluster`
sends it, `worker` is what a worker does, `folder` keeps the results, `table` counts, and `campaign` is one campaign.
"""
