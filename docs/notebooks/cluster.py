# %% [markdown]
# # On a cluster
#
# A run over a folder that all machines see is handed to an engine in parts: a pool of
# `concurrent.futures`, a client of `dask.distributed`, or anything with `submit`. Here the client
# has two workers in this process. On a cluster it is `Client("tcp://scheduler:8786")`, and `paths=`
# of `store` says where the folder and the program lie on its machines, if that is elsewhere.

# %%
import logging

import numpy as np
from distributed import Client

import cengmoat

store = cengmoat.Store("shared", workers=1)
x = store.save("x", np.arange(240 * 300, dtype="int32").reshape(240, 300) % 1009, chunks=(40, 300))
y = store.save("y", np.arange(300, dtype="int32"))

# %% [markdown]
# What the run will do. Each operation has its tasks, and a part is some tasks of one of them.

# %%
work = (x - y).rechunk((240, 50)).max(axis=0)
plan = work.plan()
print(len(plan), "operations,", plan.tasks, "tasks")
print([(it.kind, it.tasks) for it in plan])
#> 3 operations, 13 tasks
#> [('map', 6), ('copy', 1), ('fold', 6)]

# %% [markdown]
# The run. Each call of the program is told to the log of the package; here the calls are counted
# that run parts.

# %%
class Count(logging.Handler):
    parts = 0

    def emit(self, record):
        self.parts += record.getMessage().startswith("part of operation")


counted = Count()
logging.getLogger("cengmoat").addHandler(counted)
logging.getLogger("cengmoat").setLevel(logging.INFO)
with Client(processes=False, n_workers=2, threads_per_worker=1, dashboard_address=None) as client:
    most = work.store("most", executor=client)
print(counted.parts >= len(plan), most.shape)
#> True (300,)

# %% [markdown]
# What was stored is what the expression means, element by element.

# %%
print(work.check("most"), "elements are equal")
print(np.array_equal(most.compute(), (x.compute() - y.compute()).max(axis=0)))
#> 300 elements are equal
#> True

# %% [markdown]
# **A worker that was lost.** What it stored stays, and a later call makes what is missing: on this
# machine, or by an engine again.

# %%
import os

os.unlink("shared/most/c/2")
print(store.status()["most"].state)
with Client(processes=False, n_workers=1, threads_per_worker=1, dashboard_address=None) as client:
    work.store("most", executor=client, resume=True)
print(store.status()["most"].state)
#> unfinished
#> finished
