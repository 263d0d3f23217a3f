#!/bin/sh
# sources.sh FOLDER: fetches Debian's sources of zlib, bzip2, lz4 and expat into FOLDER (which must not be there) by apt-get, whose lists are
# kept there too; nothing of the system changes.
set -e
mkdir "$1"
cd "$1"
mkdir -p lists/partial
echo "deb-src [signed-by=/usr/share/keyrings/debian-archive-keyring.gpg] http://deb.debian.org/debian bookworm main" >src.list
options="-q -o Dir::Etc::SourceList=$PWD/src.list -o Dir::Etc::SourceParts=- -o Dir::State::Lists=$PWD/lists"
apt-get $options update
apt-get $options source --download-only zlib bzip2 lz4 expat
for library in zlib bzip2 lz4 expat; do
    mkdir $library
    tar -xf $library"_"*.orig.tar.* -C $library --strip-components=1
done
