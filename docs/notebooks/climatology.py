# %% [markdown]
# # A climatology, and what is unusual
#
# Four years of daily temperatures lie on a small grid, packed as int16 with a scale, as weather
# centres hand them out. The numbers are made up here. Each cell is followed by what it prints.
# The folder may only be read, as a shared archive: all that is computed lies in a work folder.

# %%
import numpy as np
import pandas
import xarray

import cengmoat
import cengmoat.xarray

days = pandas.date_range("2001-01-01", "2004-12-31")
season = (1200 * np.sin((np.arange(len(days)) - 100) * 2 * np.pi / 365.25)).astype("int16")
weather = np.arange(len(days) * 40).reshape(len(days), 5, 8) ** 2 % 1009 % 400 - 200
packed = (season[:, None, None] + weather + 1000).astype("int16")
cengmoat.Store("archive").save(
    "t2m", packed, chunks=(365, 5, 8), dims=("time", "lat", "lon"),
    attrs={"units": "degC", "scale_factor": 0.01})

# %% [markdown]
# A stored array knows its axes and attributes; xarray adds the days. Nothing is computed yet.

# %%
store = cengmoat.Store("archive", work="mine")
t = xarray.DataArray(store["t2m"], coords={"time": days}, name="t2m")
print(t.dims, t.dtype, type(t.data).__name__)
#> ('time', 'lat', 'lon') int16 Array

# %% [markdown]
# **The mean of each month**, over all years, in tenths of the stored unit. All twelve are folded in
# one pass. Means are rounded down, since there are no floats.

# %%
clim = t.cengmoat.groupby("time.month").mean(scale=10)
print(clim.dims, clim.shape)
print(clim.isel(lat=2, lon=3).values)
#> ('month', 'lat', 'lon') (12, 5, 8)
#> [-2045    48  4594 10553 16389 20632 21609 19374 14845  8845  2868  -982]

# %% [markdown]
# **Months of each year**, by labels: 48 months take as many operations as 480 would.

# %%
months = t.cengmoat.resample(time="M").max()
print(months.shape, len(months.data.plan()))
print(months.time.values[0].astype("datetime64[D]"), months.isel(lat=2, lon=3).values[:6])
#> (48, 5, 8) 4
#> 2001-01-31 [  22  251  790 1425 1977 2312]

# %% [markdown]
# **Warm spells**: a week whose mean is above 21.5 degrees. A running mean of 7 days ends at its day,
# and the first six days, of which no whole week is known, have 0. A float at the door is taken
# exactly: above 2150.5 means 2151 or more.

# %%
week = t.cengmoat.rolling(time=7).mean()
spells = (week > 2150.5).sum("time")
print(spells.values.min(), "to", spells.values.max(), "days")
#> 49 to 114 days

# %% [markdown]
# **Anomalies.** As long as there is no taking by labels, the months of the days are a table of 0 and
# 1, and the product with it takes to each day the mean of its month.

# %%
monthly = t.cengmoat.groupby("time.month").mean()
is_month = (t["time.month"] == monthly.month).astype("int64")
anomaly = (t.astype("int64") - is_month.dot(monthly)).transpose("time", "lat", "lon")
kept = anomaly.data.store("anomaly")
print(kept.shape, kept.chunksize, int(abs(kept).max()))
#> (1461, 5, 8) (365, 5, 8) 534

# %% [markdown]
# **Back to floats**, for what floats alone can do: an array of Dask in the same chunks, scaled.

# %%
celsius = t.cengmoat.decode()
print(type(celsius.data).__module__, f"{float(celsius.mean()):.2f}", celsius.attrs)
#> dask.array.core 9.75 {'units': 'degC'}

# %% [markdown]
# The archive is as it was, and the work folder has the result and a link.

# %%
import os

print(store.names(), os.path.islink("mine/t2m"), "anomaly" in os.listdir("archive"))
#> ['anomaly', 't2m'] True False
