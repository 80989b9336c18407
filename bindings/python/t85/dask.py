"""Processes many files on the workers of Dask's `distributed`. It and this module must be installed on each worker.

    >>> from distributed import Client
    >>> from t85.dask import run
    >>> from t85.many import Job
    >>> with Client("scheduler:8786") as client:
    ...     for outcome in run(client, Job("encode", folder="s3://store/streams"), names):
    ...         print(outcome.name, outcome.state, outcome.text)

Each name is one task. If a worker is lost, its tasks go to others, which skip complete outputs and repeat the rest. A file
with which workers are lost repeatedly fails, and the others continue. All workers must see the same files, in a shared folder
or in a store that fsspec can access.
"""
from __future__ import annotations

import importlib
from typing import Any, Iterable, Iterator

from .many import FAILED, Job, Outcome


def run(client: Any, job: Job, names: Iterable[str]) -> Iterator[Outcome]:
    """Yields the outcome for each file, in the order of completion. The client is one of `distributed`."""
    distributed = importlib.import_module("distributed")
    listed = list(names)
    tasks = client.map(job, listed, key=f"t85-{job.command}", pure=False, retries=3)
    name_of = {task.key: name for task, name in zip(tasks, listed)}
    for task, found in distributed.as_completed(tasks, with_results=True, raise_errors=False):
        if isinstance(found, Outcome):
            yield found
        else:
            # An exception instead of an outcome: the workers of this file were lost repeatedly.
            kind, error = found[:2]
            yield Outcome(name_of[task.key], FAILED, text=f"{kind.__name__}: {error}")
