#!/usr/bin/env bash
# Stands in for the gate when it isn't run, so that the output says so.
echo 'the gate: nothing was proved, no request of the run functions for memory refused, and bin/ is tested as it is'
exit 77
