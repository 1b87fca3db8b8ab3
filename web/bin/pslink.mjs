#!/usr/bin/env node
import {main} from "../command.mjs";
process.exitCode = await main(process.argv.slice(2));
