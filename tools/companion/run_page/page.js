'use strict';
(function () {
  const given = document.getElementById('run');
  const part = (name) => document.getElementById(name);

  // Folded parts are printed too.
  let folded = [];
  window.addEventListener('beforeprint', () => {
    folded = Array.from(document.querySelectorAll('details:not([open])'));
    folded.forEach((details) => { details.open = true; });
  });
  window.addEventListener('afterprint', () => folded.forEach((details) => { details.open = false; }));
  if (!given) return;

  const run = JSON.parse(given.textContent);
  const picture = part('picture'), slider = part('frame'), caption = part('caption');
  const play = part('play'), rate = part('rate'), now = part('now');
  let at = Number(slider.value), timer = 0, last = 0;

  function show(frame) {
    at = Math.max(0, Math.min(run.of.length - 1, frame));
    picture.src = run.pictures[run.of[at]];
    picture.alt = run.words[at];
    caption.textContent = run.captions[at];
    slider.value = String(at);
    slider.setAttribute('aria-valuetext', run.captions[at]);
    if (now) {
      const wide = Number(now.dataset.wide), x = Number(now.dataset.left) + wide * Math.min(1, run.phi[at] / Number(now.dataset.end));
      now.setAttribute('x1', String(x));
      now.setAttribute('x2', String(x));
    }
  }

  function stop() {
    cancelAnimationFrame(timer);
    timer = 0;
    play.textContent = '▶ Play';
    play.setAttribute('aria-pressed', 'false');
  }

  function tick(time) {
    const due = Math.floor((time - last) * Number(rate.value) / 1000);
    if (due > 0) {
      last += due * 1000 / Number(rate.value);
      show(at + due);
    }
    if (at >= run.of.length - 1) {
      stop();
    } else {
      timer = requestAnimationFrame(tick);
    }
  }

  play.addEventListener('click', () => {
    if (timer) {
      stop();
      return;
    }
    if (at >= run.of.length - 1) show(0);
    play.textContent = '❚❚ Stop';
    play.setAttribute('aria-pressed', 'true');
    last = performance.now();
    timer = requestAnimationFrame(tick);
  });
  slider.addEventListener('input', () => { stop(); show(Number(slider.value)); });
  part('before').addEventListener('click', () => { stop(); show(at - 1); });
  part('after').addEventListener('click', () => { stop(); show(at + 1); });
  document.querySelectorAll('.thumb').forEach((card) => card.addEventListener('click', () => {
    stop();
    show(Number(card.dataset.frame));
    picture.scrollIntoView({ block: 'nearest' });
  }));
  show(at);
}());
