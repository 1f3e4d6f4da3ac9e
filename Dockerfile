# docker build -t ppdb -f Dockerfile release; docker run --rm -v "$PWD:/work" ppdb verify app.pdb
FROM debian:stable-slim
COPY ppdb /usr/local/bin/ppdb
WORKDIR /work
ENTRYPOINT ["ppdb"]
