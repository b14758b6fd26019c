# %% [markdown]
# # Label images
#
# A segmentation gives each pixel of an image the number of the cell to which it belongs, and 0 to
# the background. Here are three frames of an image and of its labels, made up of discs. Sizes,
# brightness and boxes of all cells come from folds by labels, in one pass each.

# %%
import numpy as np

import cengmoat
from cengmoat import array_api as xp

rows, cols = np.mgrid[:96, :128]
centres = [(20, 24, 9), (30, 70, 14), (62, 40, 17), (70, 100, 11), (84, 12, 6)]
labels = np.zeros((3, 96, 128), "int32")
for frame in range(3):
    for number, (row, col, radius) in enumerate(centres, 1):
        labels[frame][(rows - row - frame) ** 2 + (cols - col) ** 2 <= radius**2] = number
image = ((rows * 7 + cols * 13) % 200 + labels * 8).astype("uint16")

store = cengmoat.Store("cells")
lab = store.save("labels", labels, chunks=(1, 48, 64), dims=("frame", "row", "col"))
img = store.save("image", image, chunks=(1, 48, 64), dims=("frame", "row", "col"))
print(lab)
#> cengmoat.Array<labels, shape=(3, 96, 128), dtype=int32, chunksize=(1, 48, 64), nbytes=144.00 KiB, operations=0>

# %% [markdown]
# **Sizes.** Pixels are laid out along one axis, and counted by their label. The background is
# label 0, and is left out behind.

# %%
count = len(centres) + 1
flat = lab.reshape(-1)
sizes = cengmoat.groupby_count(flat, flat, 0, count)[1:]
print(sizes.compute())
#> [ 759 1839 2703 1131  339]

# %% [markdown]
# **Mean brightness** of each cell, rounded down, and its brightest pixel.

# %%
bright = img.reshape(-1)
total = cengmoat.groupby_sum(bright, flat, 0, count)[1:]
print((total.astype("int64") // sizes).compute())
print(cengmoat.groupby_max(bright, flat, 0, count)[1:].compute())
#> [112 113 127 130 157]
#> [207 215 223 231 239]

# %% [markdown]
# **Boxes**: the first and last row of each cell, over all frames. The numbers of the rows are
# stretched over the image, and never stored.

# %%
row_of = xp.broadcast_to(xp.arange(96, dtype="int32")[:, None], lab.shape, chunks=lab.chunksize)
row_of = row_of.reshape(-1)
print(cengmoat.groupby_min(row_of, flat, 0, count)[1:].compute())
print(cengmoat.groupby_max(row_of, flat, 0, count)[1:].compute())
#> [11 16 45 59 78]
#> [31 46 81 83 92]

# %% [markdown]
# **A mask of small cells**, and how many pixels of each frame it covers. Sizes are few, so they are
# compared in memory; the mask itself is lazy, and may be larger than memory.

# %%
small = [int(number) for number in np.flatnonzero(sizes.compute() < 1000) + 1]
mask = xp.zeros_like(lab, dtype="bool")
for number in small:
    mask = mask | (lab == number)
print(small, mask.sum(axis=(1, 2)).compute())
#> [1, 5] [366 366 366]

# %% [markdown]
# **What moved**: pixels whose label changed from one frame to the next.

# %%
print((lab[1:] != lab[:-1]).sum(axis=(1, 2)).compute())
#> [238 238]

# %% [markdown]
# The plan of the mean as a picture, in a file that a browser shows.

# %%
picture = total.plan().svg()
with open("plan.svg", "w", encoding="utf-8") as file:
    file.write(picture)
print(picture.count("<rect"), "boxes")
#> 8 boxes
