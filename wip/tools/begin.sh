#!/bin/bash
# begin.sh CLONE NAME
cd $1; ( time RT_JOBS=4 rt ci ) > /work/prof/$2.log 2> /work/prof/$2.err
