// Compares the run of an engine with that of the machine.
import { valueText } from './notation.mjs';
import { seen } from './seen.mjs';

/** Where the run of an engine isn't that of the machine: in its questions, its end or what names hold. */
export function differences(run, ran) {
  const { texts, ownError, contents } = seen(run);
  return [
    run.questions && questionsDifference(run, texts, ran),
    run.outcome && endDifference(run, ran, ownError),
    ...Object.entries(run.cells ?? {}).map(([name, value]) => cellDifference(name, valueText(value, contents), ran.cell(name))),
  ].filter(Boolean);
}

/** A run that is cut, or has no turn left, asks nothing more, and the engine goes on. So it does where a program catches an error of its own. */
function questionsDifference({ outcome, goesOn = [], isCut }, texts, { asked }) {
  const wanted = [...texts, ...goesOn];
  const compared = isCut || outcome?.is === 'no_turns' ? asked.slice(0, wanted.length) : asked;
  return compared.join('\n') === wanted.join('\n') ? undefined : `asked ${compared.join('; ')}, and not ${wanted.join('; ')}`;
}

function endDifference({ outcome, goesOn }, ran, ownError) {
  const isError = (name, message) => ran.is === 'error' && ran.name === name && message.test(ran.message);
  const agrees = () => {
    switch (outcome.is) {
      case 'finished': case 'waiting': return ran.is === outcome.is;
      case 'no_turns': return ran.is === 'waiting' || ran.is === 'endless';
      case 'called_uncallable': return isError('TypeError', /is not a function/);
      case 'outside':
        return goesOn ? ran.is === 'finished' || ran.is === 'waiting'
          : isError('ReferenceError', /before initialization/) || isError('TypeError', /constant variable|is not a function/);
      default:
        if (outcome.value.is === 'pattern_error') return isError('TypeError', /destructure|Cannot read properties of (undefined|null)/);
        if (ownError && outcome.value === ownError.thrown) {
          return isError('TypeError', new RegExp(`of (undefined|null) \\(reading '${ownError.key}`));
        }
        return ran.is === 'threw' && ran.text === valueText(outcome.value);
    }
  };
  return agrees() ? undefined : `ended by ${endText(ran)}, and not by ${outcome.is}${outcome.value ? ` ${valueText(outcome.value)}` : ''}`;
}

function cellDifference(name, wanted, held) {
  return held === wanted ? undefined : `${name} holds ${held} at the end, and not ${wanted}`;
}

export function endText({ is, text, name, message }) {
  return [is, text, name && `${name}: ${message}`].filter(Boolean).join(' ');
}
