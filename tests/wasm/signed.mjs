// A statement that openssl, ssh-keygen and minisign have signed, by the lines of docs/SIGNING.md.
export const ROOT = `the root of a grant store
version 2
root f5d7fa76ae94b01bee4e95b0ccc514710956389b2bc39eeef16634ae3be0ea87
published 2026-05-10T10:00:00Z
made 2026-05-10T10:30:00Z
not-after 2999-12-31T23:59:59Z
`;
export const OPENSSL = {
  key: `-----BEGIN PUBLIC KEY-----
MCowBQYDK2VwAyEAymb8mQAxzvnhT3WFTrgO479xbcmgzLc+emU69p9gRkg=
-----END PUBLIC KEY-----
`,
  signature: 'e51f0b64e76bfd6655f38dbfc57a90e03d11183185ab5aaef94dcb7509d7e5dce8afcdeeebba9c6e0d038ed6a38e65d9e0cc3708d5387d12e20054315332b10c',
};
export const SSH = {
  key: `desk@market namespaces="grant-roots" ssh-ed25519 AAAAC3NzaC1lZDI1NTE5AAAAICwUMz2tsXU66gqUx3YSXF4+OmETSTylqP8HYJkb4m7k desk@market
`,
  fingerprint: 'SHA256:gghbIwV/rrfo2OhtFoMIQD3V9ICf8GwWVHCHD1I7j9U',
  signature: `-----BEGIN SSH SIGNATURE-----
U1NIU0lHAAAAAQAAADMAAAALc3NoLWVkMjU1MTkAAAAgLBQzPa2xdTrqCpTHdhJcXj46YR
NJPKWo/wdgmRvibuQAAAALZ3JhbnQtcm9vdHMAAAAAAAAABnNoYTUxMgAAAFMAAAALc3No
LWVkMjU1MTkAAABAvHI1xJd0Pb6M72/zslh7RnmGrUE2s/Ful61tJWzatxKQGWN9hxVlQY
boZR3LVqsaC6wdJUvuT5WltDjDDqFnBw==
-----END SSH SIGNATURE-----
`,
};
export const MINISIGN = {
  key: `untrusted comment: minisign public key B214C1ED4CF21A00
RWQAGvJM7cEUstvKrsTtETP1SsyGhiHeYrPZoXtsPMH7oaIqa94A34yb
`,
  signature: `untrusted comment: signature from minisign secret key
RUQAGvJM7cEUsjHU+5DFSgFe2QpFXgI7no6gFbFCRrDYq8hmtG7xIUUIPf6llPNEPo+8NkX6DV70aQANjbvJzdg3lwUB9cIvrAU=
trusted comment: timestamp:1794836366	file:root.txt	hashed
Nphv9NCxFgFUTTZ6Da0D+DkYioH63kkdYL1DzLLuNZ9LBUCM9vzMPrc+6QrVoKFhblh/x4B4ZUjRwLWCYik1AQ==
`,
};
