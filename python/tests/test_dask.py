"""A cluster of two processes gives the rows that threads give, also where one of them dies in the middle."""

import os
import signal
import time
from contextlib import suppress
from pathlib import Path
from typing import Iterator, List

import pytest
from distributed import Client, LocalCluster

import cha.dask
from cha.db import judge


@pytest.fixture
def client(tmp_path: Path) -> Iterator[Client]:
    with LocalCluster(
        n_workers=2, threads_per_worker=1, processes=True, dashboard_address=None, local_directory=str(tmp_path), silence_logs=50
    ) as cluster:
        with Client(cluster) as client:
            yield client


def test_a_cluster_gives_the_same_rows(files: List[Path], client: Client) -> None:
    assert list(cha.dask.judge(files, client, piece=40_000)) == list(judge(files))
    assert list(cha.dask.judge(files[0], client, only="changed", piece=3000)) == list(judge(files[0], only="changed"))


def processes(client: Client) -> List[int]:
    """The workers' processes; none while one of them is just going."""
    with suppress(OSError):
        return list(client.run(os.getpid).values())
    return []


def test_a_worker_that_dies_costs_no_row(files: List[Path], client: Client) -> None:
    dies, lives = processes(client)
    found = []
    for row in cha.dask.judge(files, client, piece=20_000):
        found.append(row)
        if len(found) == 300:
            os.kill(dies, signal.SIGKILL)
    assert found == list(judge(files))
    while len(now := processes(client)) < 2 or dies in now:
        time.sleep(0.1)
    assert lives in now
