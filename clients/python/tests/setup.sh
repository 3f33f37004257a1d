#!/bin/bash
# Installs what the clients and their tests can use, from Debian. Tests of what isn't there are skipped and say so.
set -e
# The page with its editor, and a browser with its driver
apt-get install -y python3-aiohttp libjs-codemirror python3-selenium chromium chromium-driver
# Arrays, plots, bars, the notebook of docs, and Golly on a display that nobody sees
apt-get install -y python3-numpy python3-matplotlib python3-tqdm jupyter-nbconvert python3-ipykernel golly xvfb
