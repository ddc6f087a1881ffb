"""Judges the logs of a night, on this machine or on the machines of a Dask cluster, which have kfifo_test, its library
and the logs too. It prints a line for each log that is not legal.

    campaign.py FOLDER [SCHEDULER]      SCHEDULER is an address, as head:8786
"""
import pathlib
import sys

import kfifo_test


def campaign(folder, executor=None):
    logs = sorted(pathlib.Path(folder).glob("*.csv"))
    for judged in kfifo_test.judge_logs(logs, executor):
        if judged.fault or judged.verdict.status != "legal":
            print(f"{judged.path}: {judged.fault or judged.verdict.headline or judged.verdict.text}")


def campaign_on_cluster(folder, scheduler):
    from distributed import Client

    with Client(scheduler) as cluster:  # as "head:8786"
        campaign(folder, cluster.get_executor())


if __name__ == "__main__":
    if len(sys.argv) > 2:
        campaign_on_cluster(*sys.argv[1:])
    else:
        campaign(sys.argv[1])
