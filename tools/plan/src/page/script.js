// Shows one visit at a time. Without this script all of them are shown.
(() => {
  const steps = [...document.querySelectorAll('.step')];
  const controls = document.querySelector('.controls');
  // the conjuncts of one number, on both sides
  const partners = (mark) => mark.closest('section, article').querySelectorAll(`[data-mark="${mark.dataset.mark}"]`);
  for (const mark of document.querySelectorAll('[data-mark]')) {
    mark.addEventListener('mouseenter', () => partners(mark).forEach((other) => other.classList.add('paired')));
    mark.addEventListener('mouseleave', () => partners(mark).forEach((other) => other.classList.remove('paired')));
  }
  if (!controls) return;
  const slider = controls.querySelector('input');
  const said = controls.querySelector('output');
  const button = (go) => controls.querySelector(`[data-go="${go}"]`);
  let now = 0;

  const nextChange = () => steps.findIndex((step, at) => at > now && step.classList.contains('altered'));

  function show(at) {
    now = Math.max(0, Math.min(steps.length - 1, at));
    steps.forEach((step, place) => step.classList.toggle('current', place === now));
    for (const link of document.querySelectorAll('.all a')) {
      link.ariaCurrent = link.hash === `#${steps[now].id}` ? 'step' : null;
    }
    const title = `${now + 1} of ${steps.length}`;
    slider.value = now + 1;
    slider.setAttribute('aria-valuetext', title);
    said.textContent = `Visit ${title}`;
    button('first').disabled = button('back').disabled = now === 0;
    button('last').disabled = button('next').disabled = now === steps.length - 1;
    button('change').disabled = nextChange() < 0;
  }

  function go(at) {
    show(at);
    try {
      history.replaceState(null, '', `#${steps[now].id}`);
    } catch {
      // a page without an address of its own keeps none
    }
  }

  function follow() {
    const at = steps.findIndex((step) => `#${step.id}` === location.hash);
    if (at < 0) return;
    show(at);
    document.getElementById('visits').scrollIntoView();
  }

  const gos = {
    first: () => go(0),
    back: () => go(now - 1),
    next: () => go(now + 1),
    last: () => go(steps.length - 1),
    change: () => go(nextChange()),
  };
  for (const [name, act] of Object.entries(gos)) button(name).addEventListener('click', act);
  slider.addEventListener('input', () => go(slider.value - 1));
  document.addEventListener('keydown', (event) => {
    const act = { ArrowLeft: gos.back, ArrowRight: gos.next }[event.key];
    const modified = event.altKey || event.ctrlKey || event.metaKey || event.shiftKey;
    if (!act || modified || event.target.closest?.('input, .scroll, pre')) return;
    act();
    event.preventDefault();
  });
  window.addEventListener('hashchange', follow);
  document.documentElement.classList.add('js');
  controls.hidden = false;
  show(0);
  follow();
})();
