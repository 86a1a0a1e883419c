//! What protected records hold, and what of it changes keys.

use super::{Content, Handshake, Stage, NOTHING};
use crate::hellos;
use crate::key_schedule::next_secret;
use crate::protection::DoesNotOpen;
use crate::reason::Reason;
use crate::records::{Header, ALERT, APPLICATION_DATA, CHANGE_CIPHER_SPEC, HANDSHAKE};
use crate::search::MOST_UPDATES;
use crate::SERVER;

const FATAL: u8 = 2;

impl Handshake {
    /// Keeps the description of a fatal alert (RFC 8446, 6).
    pub(super) fn note_alert(&mut self, content: &[u8]) {
        if let [FATAL, alert] = content {
            self.alert = Some(*alert);
        }
    }

    /// What a record holds; none where it is early data that was rejected.
    fn opened_content(&mut self, side: usize, header: &Header, body: &[u8], room: &mut Vec<u8>) -> Content {
        let half = &mut self.halves[side];
        let opener = half.opener.as_mut().ok_or(Reason::NotTls)?;
        match opener.open(header, body, room) {
            Ok(length) => {
                half.opened += 1;
                self.opened += 1;
                Ok(Some(length))
            }
            Err(DoesNotOpen) if half.skips && half.opened == 0 => {
                self.rejected_records += 1;
                Ok(None)
            }
            Err(DoesNotOpen) if half.opened > 0 => Err(Reason::BadRecord),
            Err(DoesNotOpen) => Err(Reason::WrongKey),
        }
    }

    pub(super) fn read_13(&mut self, side: usize, header: &Header, body: &[u8], room: &mut Vec<u8>) -> Content {
        if header[0] != APPLICATION_DATA {
            return self.read_unprotected(header[0], body);
        }
        let length = match self.opened_content(side, header, body, room)? {
            None => return NOTHING,
            Some(length) => length,
        };
        let last = room[..length].iter().rposition(|byte| *byte != 0).ok_or(Reason::BadRecord)?;
        let (content, kind) = (&room[..last], room[last]);
        match kind {
            APPLICATION_DATA if self.stage(side) != Stage::Handshake => {
                self.early_records += u64::from(self.stage(side) == Stage::Early);
                Ok(Some(last))
            }
            HANDSHAKE => {
                let messages = self.halves[side].messages.add(content)?;
                messages.iter().try_for_each(|(message, inner)| self.meet_message(side, message, inner))?;
                NOTHING
            }
            ALERT => {
                self.note_alert(content);
                NOTHING
            }
            _ => Err(Reason::BadRecord),
        }
    }

    /// A record of TLS 1.3 in the clear among protected ones: ChangeCipherSpec says nothing, an alert may be a last
    /// word.
    fn read_unprotected(&mut self, kind: u8, body: &[u8]) -> Content {
        match kind {
            ALERT => self.note_alert(body),
            CHANGE_CIPHER_SPEC => {}
            _ => return Err(Reason::NotTls),
        }
        NOTHING
    }

    /// Meets a protected handshake message of TLS 1.3 that changes keys or says what is chosen (RFC 8446, 4).
    fn meet_message(&mut self, side: usize, kind: u8, body: &[u8]) -> Result<(), Reason> {
        match (kind, self.stage(side)) {
            (hellos::ENCRYPTED_EXTENSIONS, _) if self.role(side) == SERVER => {
                let extensions = hellos::encrypted_extensions(body)?;
                self.protocol = hellos::protocol_of(&extensions)?;
                self.accepts_early_data = Some(extensions.has(hellos::EARLY_DATA));
            }
            (hellos::FINISHED, Stage::Handshake) => self.change_stage(side, Stage::Traffic),
            (hellos::END_OF_EARLY_DATA, Stage::Early) => self.change_stage(side, Stage::Handshake),
            (hellos::KEY_UPDATE, Stage::Traffic) => {
                let suite = self.suite.ok_or(Reason::NotTls)?;
                let half = &mut self.halves[side];
                let secret = next_secret(&suite, &half.secret);
                half.updates += 1;
                half.earlier.push_back(std::mem::take(&mut half.secret));
                if half.earlier.len() > MOST_UPDATES as usize {
                    half.earlier.pop_front();
                }
                self.protect(side, secret)?;
            }
            _ => {}
        }
        Ok(())
    }

    fn change_stage(&mut self, side: usize, stage: Stage) {
        let half = &mut self.halves[side];
        half.stage = stage;
        half.opener = None;
    }

    pub(super) fn read_12(&mut self, side: usize, header: &Header, body: &[u8], room: &mut Vec<u8>) -> Content {
        let length = self.opened_content(side, header, body, room)?.unwrap_or(0);
        match header[0] {
            APPLICATION_DATA => return Ok(Some(length)),
            CHANGE_CIPHER_SPEC => return Err(Reason::Renegotiation),
            ALERT => self.note_alert(&room[..length]),
            _ => {}
        }
        NOTHING
    }
}
