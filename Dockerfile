# hexd in a container, from the programs in release/:
#   docker build -t hexd . && docker run -i --rm hexd htp
FROM debian:12-slim AS package
RUN apt-get update && apt-get install -y --no-install-recommends binutils make
COPY . /hexd
RUN DEBFULLNAME=nobody DEBEMAIL=nobody@localhost make -C /hexd deb OUT=/out

FROM debian:12-slim
COPY --from=package /out /out
RUN apt-get update && apt-get install -y --no-install-recommends python3 /out/hexd_*.deb && rm -rf /out /var/lib/apt/lists/*
ENV PATH=/usr/games:$PATH
USER nobody
ENTRYPOINT ["hexd"]
CMD ["htp"]
