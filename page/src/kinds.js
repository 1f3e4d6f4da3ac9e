/** The GUIDs that a debug file names (docs/FORMAT.md, section 3). */

export const ASYNC = "54fd2ac5-e925-401a-9c2a-f94f171072f8";
export const HOISTED = "6da9a61e-f8c7-4874-be62-68bc5630df71";
export const SOURCE_LINK = "cc110556-a091-4d38-9fec-25ab9a351a6a";
export const EMBEDDED = "0e8a571b-6926-466e-b4ad-8ab04611f5fe";

/** @type {Record<string, string>} */
export const KINDS = {
  "755f52a8-91c5-45be-b4b8-209571e552bd": "local slot map", "a643004c-0240-496f-a783-30d64f4979de": "lambda map",
  "8b78cd68-2ede-420b-980b-e15884b8aaa3": "state machine map", [SOURCE_LINK]: "Source Link",
  "83c563c4-b4f3-47d5-b824-ba5441477ea8": "dynamic locals", "ed9fdf71-8879-4747-8ed3-fe5ede3ce710": "tuple names",
  "58b2eab6-209f-4e4e-a22c-b2d0f910c782": "default namespace", "932e74bc-dba9-4478-8d46-0f32a7bab3d3": "type definition documents",
  "b5feec05-8cd0-4a83-96da-466284bb4bd8": "compilation options", "7e4d4708-096e-4c5c-aeda-cb10ba6a740d": "metadata references",
  [ASYNC]: "async stepping", [HOISTED]: "hoisted local scopes", [EMBEDDED]: "embedded source"};

/** @type {Record<string, string>} */
export const LANGUAGES = {"3f5162f8-07c6-11d3-9053-00c04fa302a1": "C#", "3a12d0b8-c26c-11d0-b442-00a0244a1dd2": "Visual Basic",
  "ab4f38c9-b6e6-43ba-be3b-58080b2ccce3": "F#"};

/** The algorithms of hashes, by the names of Web Cryptography. @type {Record<string, string>} */
export const HASHES = {"ff1816ec-aa5e-4d10-87f7-6f4963833460": "SHA-1", "8829d00f-11b8-4213-878b-770e8597ac16": "SHA-256"};

/** The words of an import by its kind, 1 to 9. */
export const USES = ["", "using", "using, of assembly", "using static", "XML namespace", "extern alias", "extern alias", "using",
  "using, of assembly", "using"];
