"""Scans folders over a Dask cluster: lines of JSON as `python -m pe_c scan` writes them, a file a partition, in the same order.

    scan_dask.py tcp://SCHEDULER:8786 FOLDER OUT [--bytes N]

FOLDER has the same path on each worker, as on a shared file system, and so has OUT; each worker has pe_c installed. A worker that is lost
costs the partition that it had: another one scans that anew. Of the results: cat OUT/*.ndjson
A file that can't be read is named on standard error, and the status is 3 then.
"""
import argparse
import os
import sys
import time

from distributed import Client

from pe_c.scan import FILE_ERROR, batches, files, line_of


def scan_one(path, some, seconds):
    """Writes a partition: under another name first, so that one that is there is whole. What is said of files that can't be read."""
    time.sleep(seconds)
    complaints = []
    with open(f"{path}.{os.getpid()}", "w", encoding="utf-8") as out:
        for said in map(line_of, some):
            out.write(said.line)
            complaints += [said.complaint] if said.status == FILE_ERROR else []
    os.replace(out.name, path)
    return len(some), complaints


if __name__ == "__main__":
    parser = argparse.ArgumentParser(description=__doc__, formatter_class=argparse.RawDescriptionHelpFormatter)
    parser.add_argument("scheduler")
    parser.add_argument("folder")
    parser.add_argument("out")
    parser.add_argument("--bytes", type=int, default=256 << 20)
    parser.add_argument("--seconds", type=float, default=0, help="how long a partition waits, to try what happens meanwhile")
    asked = parser.parse_args()
    os.makedirs(asked.out, exist_ok=True)
    with Client(asked.scheduler) as client:
        tasks = [client.submit(scan_one, os.path.join(asked.out, f"{i:06}.ndjson"), some, asked.seconds, pure=False)
                 for i, some in enumerate(batches(files([asked.folder], recursive=True), asked.bytes, 1 << 20))]
        done = client.gather(tasks)
    print(sum(count for count, _ in done), "files")
    unread = [it for _, complaints in done for it in complaints]
    print(*unread, sep="\n", end="\n" * bool(unread), file=sys.stderr)
    sys.exit(FILE_ERROR if unread else 0)
