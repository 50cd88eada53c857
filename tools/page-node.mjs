// What the module answers in Node, for tools/page-test.py: each line of standard input asks, as {"words":[..],"file":".."}, and gets a
// line with the answer and the output's SHA-256.
//
//     node tools/page-node.mjs cha.wasm
import { createHash } from "node:crypto";
import { readFileSync } from "node:fs";
import { open } from "../web/cha.mjs";

const cha = await open(readFileSync(process.argv[2]));
for (const line of readFileSync(0, "utf8").split("\n").filter(Boolean)) {
    const { words, file } = JSON.parse(line);
    const { answer, output } = cha.run(words, readFileSync(file));
    console.log(JSON.stringify({ answer, sha256: createHash("sha256").update(output).digest("hex") }));
}
